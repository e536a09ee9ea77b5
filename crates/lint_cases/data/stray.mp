# a comment
(program "x" 4
  (def n constant 99999999999999999999)
  [always (setq n, 1)))
