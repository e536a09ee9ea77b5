(program misplaced 4
  (def 1 power) (def 2 ground) (def 3 phia) (def 4 phib) (def 5 phic)
  (def x port input 6)
  (def y signal output (7))
  (def z flags)
  (alway (setq y t))
  (always (+ x 1) x (setq y) (setq (y) t) (cond t) (bit 0 x))
  (process p)
  (process q depth (go 5)))
