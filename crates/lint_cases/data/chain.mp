(program chain 1
  (def 1 power) (def 2 ground) (def 3 phia) (def 4 phib) (def 5 phic)
  (def a signal input 6)
  (def p signal internal) (def q signal internal) (def r signal output 7)
  (always
    (setq p (and a q))
    (cond (r (setq q a)))
    (setq r (not p))))
