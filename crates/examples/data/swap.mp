; Two registers that take each other's value, over and over.
(program swap 4
  (def 1 power) (def 2 ground) (def 3 phia) (def 4 phib) (def 5 phic)
  (def reset signal input 6)
  (def a register)
  (def b register)
  (def x port output (7 8 9 10))
  (def y port output (11 12 13 14))
  (always
    (setq x a)
    (setq y b))
  (process p 0
    (par (setq a 3) (setq b 12))
    (par (setq a b) (setq b a))))
