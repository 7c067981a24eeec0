autocmd BufNewFile,BufRead *.ccn,*.defs setfiletype cocoon
