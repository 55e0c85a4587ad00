autocmd BufRead,BufNewFile *.tcel setfiletype tcel
