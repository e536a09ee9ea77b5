; The lights of a road: green until a car waits at the side, then yellow for a clock, and red for two.
(program traffic 1
  (def 1 power) (def 2 ground) (def 3 phia) (def 4 phib) (def 5 phic)
  (def reset signal input 6)
  (def car signal input 7)
  (def green signal output 8)
  (def yellow signal output 9)
  (def red signal output 10)
  (process lights 0
    wait
    (cond
      (car (setq green t))
      (t (setq green t) (go wait)))
    (setq yellow t)
    (setq red t)
    (par (setq red t) (go wait))))
