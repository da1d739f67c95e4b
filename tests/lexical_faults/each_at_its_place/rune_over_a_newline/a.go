x 'a
'