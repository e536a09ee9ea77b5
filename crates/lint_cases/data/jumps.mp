(program jumps 4
  (def 1 power) (def 2 ground) (def 3 phia) (def 4 phib) (def 5 phic)
  (def a signal input 6)
  (def n register)
  (def o port output (7 8 9 10))
  (process main 0
    start
    (par (setq n (1+ n)) (go start) (go start))
    start
    (cond (a (go strat)))
    (call start))
  (process none 9)
  (always (setq o n) (go start)))
