; A word where a signal is needed: whether x is 0 is asked by (=0 x).
(program sorts 4
  (def 1 power) (def 2 ground) (def 3 phia) (def 4 phib) (def 5 phic)
  (def x port input (6 7 8 9))
  (def y signal output 10)
  (always (setq y x)))
