; A sum that grows in turns, and a process that waits for them.
(program turns 4
  (def 1 power) (def 2 ground) (def 3 phia) (def 4 phib) (def 5 phic)
  (def reset signal input 6)
  (def n port input (7 8 9 10))
  (def step constant 3)
  (def sum port output (11 12 13 14))
  (def waits signal output 15)
  (def total register)
  (def seen flag)
  (always
    (setq sum total)
    (setq waits (not seen)))
  (process count 1
    (par (setq total (+ total n)) (call turn))
    (setq total (+ total step))
    turn
    (setq seen t)
    (par (setq seen f) (return)))
  (process watch 0
    idle
    (cond
      (seen (setq total 8))
      (t (go idle)))
    (go idle)))
