(program whole 1 (def 1 power) (def a signal output 2) (always (setq a t)))
