; What the stimuli of these rows are for.
(program pads 4
  (def 1 power) (def 2 ground) (def 3 phia) (def 4 phib) (def 5 phic)
  (def reset signal input 6)
  (def a signal input 7)
  (def b port input (8 9 10 11))
  (def n register)
  (def y port output (12 13 14 15))
  (always (setq y n) (cond (a (setq n b)))))
