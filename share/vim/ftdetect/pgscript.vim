" Files that end in .script are scripts of pgscript.
autocmd BufRead,BufNewFile *.script setfiletype pgscript
