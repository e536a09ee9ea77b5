(program width 65 (def 1 power))
