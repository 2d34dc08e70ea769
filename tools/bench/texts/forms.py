"""Verilog files that are made to hurt when they are read: what `run.py` measures. Each form is a title and its text.

A file of 4 MiB has at most some 4 million tokens, and so has a short one by macros: no text has more than 4,194,304.
"""

LIMIT = 4_194_304
TOKENS = 4_194_304

ORDINARY = """module m{n} #(parameter W = 8) (input clk, input rst, input [W-1:0] a, b, output reg [W-1:0] q, output [W:0] s);
  // s
  wire [W:0] s0 = a + b; wire [W-1:0] n = a & ~b;
  reg [W-1:0] last, m [0:15];
  assign s = rst ? 9'd0 : s0 + {{1'b0, n}};
  always @(posedge clk)
    if (rst) q <= 8'h00;
    else begin
      case (a[1:0]) 2'd0: q <= b; 2'd1, 2'd2: q <= q + 1; default: q <= {{q[6:0], q[7]}}; endcase
      m[a[3:0]] <= last; last <= m[b[3:0]];
    end
endmodule
"""


def filled(head, unit, tail):
    """As many units as fit between a head and a tail."""
    return head + unit * ((LIMIT - len(head) - len(tail)) // len(unit)) + tail


def ordinary():
    modules, size, n = [], 0, 0
    while True:
        text = ORDINARY.format(n=n)
        if size + len(text) > LIMIT:
            return "".join(modules), n
        modules.append(text)
        size, n = size + len(text), n + 1


def body(head, unit, tail):
    return filled("module t; " + head, unit, tail + " endmodule\n")


def used(head, unit, tokens, tail):
    """As many units as there may be tokens, by macros of which each stands for a hundred of the one before."""
    times = (TOKENS - 200) // tokens
    macros = ["`define A0 " + unit + "\n"]
    size, k = 1, 0
    while size * 100 <= times and len(unit) * size * 100 <= 400_000:
        macros.append(f"`define A{k + 1} " + f"`A{k} " * 100 + "\n")
        size, k = size * 100, k + 1
    # Macro texts are counted at each use, 64 MiB of them at most.
    whole, rest = divmod(times, size)
    return "".join(macros) + "module t; " + head + f" `A{k}" * whole + " `A0" * min(rest, 200) + " " + tail + " endmodule\n"


def ladder(names):
    """Macros of which each stands for two of the one before, over one token."""
    return "".join(f"`define A{k + 1} `A{k} `A{k}\n" for k in range(names)) + f"`define A0 a\n`A{names}"


def forms():
    text, count = ordinary()
    yield f"{count} ordinary modules", text
    # Trees of blocks.
    nested = "begin " * 190 + "end " * 190
    yield "a macro of 190 nested blocks, used 11,030 times", "`define A " + nested + "\nmodule t; always @* begin " + "`A " * 11_030 + "end endmodule\n"
    yield "if(a) nested 190 deep, 5,400 times", "`define A always @* " + "if(a)" * 190 + ";\nmodule t; " + "`A " * 5_400 + "endmodule\n"
    yield "arms of a case, by macros", used("always @* case(a)", "a:;", 3, "endcase")
    yield "arms of a case that assign, by macros", used("always @* case(a)", "0:x=b;", 6, "endcase")
    yield "values of one arm, by macros", used("always @* case(a)", "a,", 2, "a:; endcase")
    yield "a case of one arm, by macros", used("always @* begin", "case(a)a:;endcase", 8, "end")
    yield "case nested 190 deep, by macros", used("", "always @* " + "case(a)a:" * 190 + ";" + "endcase " * 190, 190 * 7 + 4, "")
    yield "empty statements, by macros", used("always @* begin", ";", 1, "end")
    yield "empty blocks, by macros", used("always @* begin", "begin end", 2, "end")
    yield "assignments in a block, by macros", used("always @* begin", "x=b;", 4, "end")
    yield "if without else, by macros", used("always @* begin", "if(a);", 5, "end")
    yield "if with else, by macros", used("always @* begin", "if(a);else ;", 7, "end")
    yield "blocks of an always each, by macros", used("", "always @*;", 4, "")
    yield "begin end pairs", body("always @* begin ", "begin end ", "end")
    yield "blocks nested 200 deep", body("", "always @* " + "begin " * 200 + "end " * 200, "")
    yield "one ladder of else if", body("always @* ", "if (a) x=b; else ", "x=c;")
    yield "case items", body("always @* case (a) ", "0:x=b;", "endcase")
    # Expressions.
    yield "one chain of +", body("assign x = a", "+ab", ";")
    yield "one chain of + and names of a letter, by macros", used("assign x = a", "+a", 2, ";")
    yield "one chain of mixed operators", body("assign x = a", "&b+c*d", ";")
    yield "one chain of ?:", body("assign x = ", "a?b:", "c;")
    yield "one chain of ?:, by macros", used("assign x = ", "a?a:", 4, "a;")
    yield "prefix operators", body("assign x = ", "~", "a;")
    yield "brackets nested 200 deep", body("", "assign x = " + "(" * 200 + "a" + ")" * 200 + ";", "")
    yield "braces and selects nested 200 deep", body("", "assign x = " + "{a[" * 100 + "a" + "]}" * 100 + ";", "")
    yield "parts of a concatenation, by macros", used("assign x = {", "a,", 2, "a};")
    yield "parts of one bit, by macros", used("assign x = {", "1'b0,", 3, "a};")
    yield "replications in one another, by macros", used("assign x = {", "{1{{1{{1{a}}}}}},", 20, "a};")
    yield "selects with two bounds, by macros", used("assign x = {", "a[b:c],", 7, "a};")
    yield "sums of two, each in brackets, by macros", used("assign x = {", "(a+a),", 6, "a};")
    yield "assignments to parts, by macros", used("", "assign {a,a}=a;", 9, "")
    # Declarations, instances, modules.
    yield "nets of a wire each, by macros", used("", "wire b;", 3, "")
    yield "names of one wire, by macros", used("wire a", ",a", 2, ";")
    yield "memories of one reg, by macros", used("reg a", ",a[b:c]", 7, ";")
    yield "nets with values, by macros", used("wire a", ",a=b", 4, ";")
    yield "parameters, by macros", used("parameter a=b", ",a=b", 4, ";")
    yield "continuous assignments, by macros", used("", "assign a=b;", 5, "")
    yield "instances without connections, by macros", used("u a()", ",a()", 4, ";")
    yield "instances with parameters, by macros", used("", "u#(.a())a();", 13, "")
    yield "connections", body("u v(a", ",a", ");")
    yield "empty connections, by macros", used("u v(a", ",", 1, ");")
    yield "connections by name, by macros", used("u v(.a()", ",.a()", 5, ");")
    yield "events of one list, by macros", used("always @(a", " or a", 2, ");")
    yield "modules without items, by macros", used("endmodule", "module a;endmodule", 4, "module b;")
    yield "ports", filled("module t(input p", ",p", "); endmodule\n")
    yield "names of ports", filled("module t(p", ",p", "); endmodule\n")
    # Tokens and text.
    yield "one identifier", filled("module ", "a", "; endmodule\n")
    yield "one number", body("assign x = ", "1", ";")
    yield "numbers of 128 bits", body("assign x = {a", ",128'hFFFF_FFFF_FFFF_FFFF_FFFF_FFFF_FFFF_FFFF", "};")
    yield "one comment", filled("module t; /*", " ", "*/ endmodule\n")
    yield "comments of four bytes", filled("module t; ", "/**/", "endmodule\n")
    yield "attributes", filled("module t; ", "(*a*)", "endmodule\n")
    yield "blanks", " " * LIMIT
    yield "line feeds", "\n" * LIMIT
    yield "opening brackets", "(" * LIMIT
    yield "quotes", '"' * LIMIT
    yield "backslashes", "\\" * LIMIT
    yield "quotes in text that is left out", "`ifdef A\n" + "\"\\\n" * ((LIMIT - 20) // 3) + "`endif\n"
    # Macros and conditionals.
    yield "`define lines", filled("", "`define A b\n", "")
    yield "names of macros", "".join(f"`define A{k} b\n" for k in range(230_000))
    yield "one macro of 4 MiB", filled("`define A ", "b ", "\nmodule t; endmodule\n")
    yield "lines that go on", filled("`define A ", "\\\n", "\nmodule t; endmodule\n")
    yield "macro uses", filled("`define A wire b;\nmodule t; ", "`A ", "endmodule\n")
    yield "macros that stand for nothing", filled("`define A\nmodule t; ", "`A ", "endmodule\n")
    yield "uses of a macro of 60 names", "".join(f"`define A{k + 1} `A{k}\n" for k in range(60)) + filled("`define A0\nmodule t; ", "`A60 ", "endmodule\n")[: LIMIT - 2000].rsplit("`", 1)[0] + "endmodule\n"
    yield "a macro bomb", ladder(60)
    yield "64 MiB of macro texts", "`define A " + "/**/" * 100_000 + "\nmodule t; " + "`A " * 160 + "endmodule\n"
    yield "conditionals side by side", filled("", "`ifdef A\n`endif\n", "")
    yield "conditionals in one another", "`ifdef A\n" * 250_000 + "`endif\n" * 250_000
    yield "one conditional of many branches", "`ifdef A\n" + "`elsif A\n" * 450_000 + "`endif\n"
