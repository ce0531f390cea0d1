" Vim's own files call *.lt something else, so the type is set anew.
autocmd BufNewFile,BufRead *.lt set filetype=lt
