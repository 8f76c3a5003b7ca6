" A litmus text of px86 begins with `litmus 1`, and a sheet with `sheet 1`, perhaps behind comments. Other tools have litmus texts of
" another form.
autocmd BufRead,BufNewFile *.litmus
      \ if match(getline(1, 100), '^\s*\%(litmus\|sheet\)\s\+1\s*\%(#.*\)\=$') >= 0 | setfiletype px86 | endif
