(program counter 4
  (def 1 power) (def 2 ground) (def 3 phia) (def 4 phib) (def 5 phic)
  (def reset signal input 6)
  (def up signal input 7)
  (def n register)
  (def out port output (8 9 10 11))
  (always
    (setq out n)
    (cond (up (setq n (1+ n))))
  (def spare flag))
