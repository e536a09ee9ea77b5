; Counts clocks from the last reset on.
(program count 4
  (def 1 power) (def 2 ground) (def 3 phia) (def 4 phib) (def 5 phic)
  (def reset signal input 6)
  (def q port output (7 8 9 10))
  (def n register)
  (always
    (setq q n)
    (setq n (1+ n))))
