"""Mistakes that people make in a job's text, each a change of one good text, and what ./job says of it. docs/MISTAKES.md shows them."""

GOOD = '''type rock = sand | shale
type list = nil | cons(int, list)

procedure main
    local N : int
    local L : list at A
    region A : list, cons.2 -> A
    N = 3
    call down(N, L)
    call log(L)
end

procedure down
    in N : int
    out L : list at A
    local Zero : int
    local One : int
    local Next : int
    local Rest : list at A
    region A : list born, cons.2 -> A
    Zero = 0
    if Zero < N
        One = 1
        Next = N - One
        call down(Next, Rest)
        L = cons(N, Rest)
    else
        L = nil
    end
end

procedure log
    in L : list at A
    local H : int
    local T : list at A
    local Rock : rock
    region A : list, cons.2 -> A
    switch L
    arm nil
        Rock = sand
    arm cons(H, T)
        print H
        call log(T)
        call limit(H)
    end
end

procedure limit
    in Depth : int
    local Most : int
    local Spare : list at B
    local None : list at B
    region B : list, cons.2 -> B
    try
        Most = 2
        None = nil
        Spare = cons(Depth, None)
        test Most < Depth
    then
        print Most
    else
        print Depth
    end
end
'''

# what was done, the good text's words, what stands in their place, and the line that is to be named (0: none is)
MISTAKES = (
    ('a misspelt switch', 'switch L', 'swich L', 38),
    ('a misspelt arm', 'arm nil', 'amr nil', 39),
    ('a misspelt procedure', 'procedure log', 'procedur log', 32),
    ('input for in', 'in N : int', 'input N : int', 14),
    ('a word of another language', 'local One', 'var One', 17),
    ('words behind an end', 'end\n\nprocedure log', 'end down\n\nprocedure log', 30),
    ('a misspelt variable', 'Next = N - One', 'Nxet = N - One', 24),
    ('a region that is not declared', 'local Rest : list at A', 'local Rest : list at B', 19),
    ('no end of an if', '        L = nil\n    end\nend', '        L = nil\nend', 22),
    ('no end of a switch', '        call limit(H)\n    end\nend', '        call limit(H)\nend', 38),
    ('no end of a procedure', '    call log(L)\nend\n', '    call log(L)\n', 4),
    ('an end too many', '        L = nil\n    end\nend', '        L = nil\n    end\n    end\nend', 31),
    ('an if behind else', '    else\n        L', '    else if N < Zero\n        L', 27),
    ('a misspelt try', '    try\n', '    tyr\n', 54),
    ('a misspelt test', 'test Most < Depth', 'tset Most < Depth', 58),
    ('no then of a try', '    then\n', '', 54),
    ('no end of a try', '        print Depth\n    end\nend', '        print Depth\nend', 54),
    ('a then in an if', '    if Zero < N\n', '    if Zero < N\n    then\n', 23),
    ('a print in a condition', '        test Most < Depth\n', '        print Depth\n        test Most < Depth\n', 58),
    ('a call in a condition', '        test Most < Depth\n', '        call limit(Most)\n        test Most < Depth\n', 58),
    ('an if in a condition', '        test Most < Depth\n', '        if Most < Depth\n        end\n', 58),
    ('a try in a condition', '        test Most < Depth\n', '        try\n            test Most < Depth\n        then\n        end\n', 58),
    ('a test outside a condition', '        print Most\n', '        test Most < Depth\n', 60),
    ('a test that is greater', 'test Most < Depth', 'test Depth > Most', 58),
    ('greater for less', 'if Zero < N', 'if N > Zero', 22),
    ('a number in a sum', 'Next = N - One', 'Next = N - 1', 24),
    ('a number that is too large', 'N = 3\n', 'N = 40000\n', 8),
    ('two equals signs', 'N = 3\n', 'N == 3\n', 8),
    ('a semicolon', 'print H', 'print H;', 42),
    ('no call', '    call down(N, L)', '    down(N, L)', 9),
    ('a declaration among the goals', '    N = 3\n', '    N = 3\n    local M : int\n', 9),
    ('a variable declared twice', '    local Zero : int\n', '    local Zero : int\n    local Zero : int\n', 17),
    ('arms in the wrong order', '    arm nil\n        Rock = sand\n    arm cons(H, T)\n', '    arm cons(H, T)\n        Rock = sand\n    arm nil\n', 39),
    ('an arm that is missing', '    arm nil\n        Rock = sand\n', '', 38),
    ('too few arguments of a call', 'call log(T)', 'call log()', 43),
    ('an argument of another type', 'call log(T)', 'call log(H)', 43),
    ('too few arguments of a term', 'cons(N, Rest)', 'cons(Rest)', 26),
    ('arguments of a term exchanged', 'cons(N, Rest)', 'cons(Rest, N)', 26),
    ('a print of a list', 'print H', 'print T', 42),
    ('a variable without its region', 'local T : list at A', 'local T : list', 35),
    ('a region for a type of constants', 'local Rock : rock', 'local Rock : rock at A', 36),
    ('a region without its edge', 'region A : list born, cons.2 -> A', 'region A : list born', 20),
    ('a region of a type of constants', '    region A : list, cons.2 -> A\n    switch L', '    region A : list, cons.2 -> A\n    region R : rock\n    switch L', 38),
    ('an if on a list', 'if Zero < N', 'if Rest < N', 22),
    ('a test of a list', 'test Most < Depth', 'test Spare < Depth', 58),
    ('a sum of a list', 'Next = N - One', 'Next = N - Rest', 24),
    ('too few arguments of an arm', 'arm cons(H, T)', 'arm cons(H)', 41),
    ('too many arguments of a call', 'call log(L)', 'call log(L, N)', 10),
    ('arguments of a call exchanged', 'call down(Next, Rest)', 'call down(Rest, Next)', 25),
    ('a switch on a number', 'switch L', 'switch H', 38),
    ('an assign of two types', 'Rock = sand', 'Rock = H', 40),
    ('a procedure that nothing calls', '    call log(L)\n', '', 31),
    ('a create of its own', '    N = 3\n', '    create A\n    N = 3\n', 8),
    ('a variable read before it has a value', '    N = 3\n', '', 0),
    ('a variable given a value twice', '        One = 1\n', '        One = 1\n        Zero = 1\n', 0),
    ('no value for an out variable on one path', '    else\n        L = nil\n', '', 0),
    ('an else part that reads what the condition gives', '        print Depth\n', '        print Most\n', 0),
    ('an in variable of the first procedure', 'procedure main\n    local N', 'procedure main\n    in N', 0),
    ('a term in two regions', 'local Rest : list at A\n    region A : list born, cons.2 -> A', 'local Rest : list at B\n    region A : list born, cons.2 -> A\n    region B : list, cons.2 -> B', 0),
    ('an assign between two regions', '    region A : list, cons.2 -> A\n    N = 3\n    call down(N, L)\n',
     '    local M : list at B\n    region A : list, cons.2 -> A\n    region B : list, cons.2 -> B\n    N = 3\n    call down(N, L)\n    M = L\n', 0),
    ('out for in', 'in L : list at A\n    local H', 'out L : list at A\n    local H', 0),
    ('dead for born', 'region A : list born, cons.2 -> A', 'region A : list dead, cons.2 -> A', 0),
    ('a class that does not fit', 'in L : list at A\n    local H : int\n    local T : list at A\n    local Rock : rock\n    region A : list,',
     'in L : list at A\n    local H : int\n    local T : list at A\n    local Rock : rock\n    region A : list born,', 0),
)


def texts():
    """What was done, the text with it, and the line that is to be named."""
    for what, old, new, line in MISTAKES:
        assert GOOD.count(old) == 1, what
        yield what, GOOD.replace(old, new), line
