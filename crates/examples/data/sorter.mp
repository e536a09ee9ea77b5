; Sorts four words: neighbours that stand in the wrong order change places, in turn at the ends and in the middle. Four clocks
; after they were taken, the words stand in order, the least in a.
(program sorter 4
  (def 1 power) (def 2 ground) (def 3 phia) (def 4 phib) (def 5 phic)
  (def reset signal input 6)
  (def p port input (7 8 9 10))
  (def q port input (11 12 13 14))
  (def r port input (15 16 17 18))
  (def s port input (19 20 21 22))
  (def least port output (23 24 25 26))
  (def low port output (27 28 29 30))
  (def high port output (31 32 33 34))
  (def most port output (35 36 37 38))
  (def sorted signal output 39)
  (def a register) (def b register) (def c register) (def d register)
  (def again flag)
  (always
    (setq least a) (setq low b) (setq high c) (setq most d))
  (process sort 0
    (par (setq a p) (setq b q) (setq c r) (setq d s) (setq again t))
    ends
    (par
      (cond ((< b a) (setq a b) (setq b a)))
      (cond ((< d c) (setq c d) (setq d c))))
    (par
      (cond ((< c b) (setq b c) (setq c b)))
      (setq again f)
      (cond (again (go ends))))
    done
    (par (setq sorted t) (go done))))
