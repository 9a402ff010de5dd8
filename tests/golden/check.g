# Checks the lines of tests/golden/guava.txt again by GAP's package GUAVA (Debian: gap-guava), from the repository's root:
#     gap -q -b tests/golden/check.g
# A word has to be in ReedMullerCode(r, m); a nearest word has to be in it, and nearer to the received one than half of the minimum distance, so that
# no other word is as near. Which bits give which word is a matter of order (docs/RULES.md, §1), which GUAVA does not share: tests/outside checks it.
LoadPackage("guava");
codes := NewDictionary([0, 0], true);
code := function(r, m)
    if LookupDictionary(codes, [r, m]) = fail then AddDictionary(codes, [r, m], ReedMullerCode(r, m)); fi;
    return LookupDictionary(codes, [r, m]);
end;
bits := text -> Codeword(List(text, c -> INT_CHAR(c) - INT_CHAR('0')), GF(2));
good := 0;; bad := 0;;
file := InputTextFile("tests/golden/guava.txt");
line := ReadLine(file);
while line <> fail do
    words := SplitString(Chomp(line), " ");
    C := code(Int(words[2]), Int(words[3]));
    word := bits(words[5]);
    if words[1] = "enc" then
        right := Length(words[4]) = Dimension(C) and word in C;
    else
        right := word in C and 2 * WeightCodeword(bits(words[4]) - word) < 2 ^ (Int(words[3]) - Int(words[2]));
    fi;
    if right then good := good + 1; else bad := bad + 1; Print("not so by GUAVA: ", line); fi;
    line := ReadLine(file);
od;
Print(good, " passed, ", bad, " failed\n");
QUIT;
