; The same, a clock later.
(program late 4
  (def 1 power) (def 2 ground) (def 3 phia) (def 4 phib) (def 5 phic)
  (def reset signal input 6)
  (def a port input (7 8 9 10))
  (def q port output (11 12 13 14))
  (def r register)
  (always (setq q r) (setq r (+ a 1))))
