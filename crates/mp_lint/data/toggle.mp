; A register of one bit: its stimulus names no pad of it.
(program toggle 1
  (def 1 power) (def 2 ground) (def 3 phia) (def 4 phib) (def 5 phic)
  (def reset signal input 6)
  (def on signal input 7)
  (def x flag)
  (def y signal output 8)
  (always (setq y x) (cond (on (setq x (not x))))))
