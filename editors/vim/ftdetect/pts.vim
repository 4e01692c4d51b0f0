autocmd BufRead,BufNewFile *.pts setfiletype pts
