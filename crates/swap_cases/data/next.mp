; One more than what is given.
(program next 4
  (def 1 power) (def 2 ground) (def 3 phia) (def 4 phib) (def 5 phic)
  (def a port input (6 7 8 9))
  (def q port output (10 11 12 13))
  (always (setq q (+ a 1))))
