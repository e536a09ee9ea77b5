; A counter without a reset: what lasts from clock to clock needs an input that is called reset.
(program count 4
  (def 1 power) (def 2 ground) (def 3 phia) (def 4 phib) (def 5 phic)
  (def q port output (6 7 8 9))
  (def n register)
  (always
    (setq q n)
    (setq n (1+ n))))
