autocmd BufNewFile,BufRead *.br setfiletype br
