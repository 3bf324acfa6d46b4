#!/usr/bin/env python3
"""Texts that are refused, with their faults and places, against a built adactl.

    refused.py PATH_OF_ADACTL

One line for each text that is answered otherwise; the last line is `N passed, M failed`."""
import os
import sys
import tempfile

from answers import answer, fault_told, tell

# in place of the number of a fault
ACCEPTED = 0

# in letters of either case
UNUSED_WORDS = """Abort ABstraCt accept aRrAY aT body cAse deLaY DElta digitS DO entrY geNeRIc GOto INTeRface OF pAcKAgE praGma
pRIvate pRotECTed range renames reQUEUe SElEct sEpaRaTe somE suBtYpE synchroNiZed TAsk terminATe unTiL""".split()

DELIMITERS = "& ' ( ) * + , - . / : ; < = > | => .. := /= >= <=".split()

# each ends a line; an LF directly behind a CR ends no further one
LINE_ENDS = ["\n", "\x0b", "\x0c", "\r", "\r\n"]

# a text before its last token, and the line and column of that token
LAST_PLACES = [
    ("--\r\n", 2, 1),
    ("\n\n ", 3, 2),
    ("\r\n\r\n", 3, 1),
    ("\n\r", 3, 1),
    ("\r\r\n", 3, 1),
    ("\x0b", 2, 1),
    ("\x0c", 2, 1),
    ("\t", 1, 2),
    ("-- \xe9\x85 --\n", 2, 1),
]

# a text behind its last token, `with`, and the line and column of the end of the text
ENDS = [("", 1, 5), ("\n", 2, 1), ("\r\n", 2, 1), ("--a\x0b ", 2, 2)]

ITEM = "procedure Main is "

CONTROLLED = "with Ada.Finalization; use Ada.Finalization; procedure Main is "

POOLS = "with Block_Pools; use Block_Pools; procedure Main is "

ADDRESSES = "with System; with System.Storage_Elements; use System.Storage_Elements; " + POOLS

ALLOCATE = "procedure Allocate (Pool : in out K; A : out System.Address; S, L : in Storage_Count)"

DEALLOCATE = "procedure Deallocate (Pool : in out K; A : in System.Address; S, L : in Storage_Count)"

# a pool type with an Allocate of its own, which passes on what is asked, with a record type before its body
OWN_POOL = (
    ADDRESSES
    + "type K is new Block_Pool with null record; "
    + ALLOCATE
    + "; type R is record N : Integer; end record; type L is access R; "
    + ALLOCATE
    + " is begin Allocate (Block_Pool (Pool), A, S, L); end Allocate; "
)

MARK_POOLS = "with MR_Pools; use MR_Pools; procedure Main is "

NESTED = "procedure Main is X : Integer; begin X := {}1{}; end Main;"

# a hundred constructs are open where the item stands, in column 621: the body of Main and blocks in one another
DEEP = ITEM + "begin " * 99 + "declare {} begin null; end; " + "end; " * 98 + "end;"

# each construct of the grammar, of names that are not resolved
EVERY_CONSTRUCT = (
    "with Ada.Text_IO, System; use System; procedure Main is type N; type T is tagged; type R is limited null record;"
    " type S is record null; end record; type E is new P.Q with record A, B : Integer := 1; C : D; end record; type G is access all R;"
    " type H is access R with Storage_Pool => P; for H'storage_pool use P; X, Y : exception;"
    " V, W : aliased constant R (1, B => 2) := F (1, 2); procedure Free is new Ada.Unchecked_Deallocation (R, Name => G);"
    " procedure D (A, B : in out R; C : out R; D : in R; E : R); overriding procedure O (X : in out R) is begin null; end O;"
    " function F return Integer is begin return -1 + 2 * 1 mod 2 - abs 1; exception when others => raise; end;"
    " procedure B is begin return; end b;"
    " begin null; Free (X); A.all.B (1, 2)'First := X'Access; exit; exit when A and then B and then not C; raise X.Y;"
    " if A = 1 and B /= 2 then null; elsif A < B or else C >= \"x\" & \"x\" then null; else null; end if;"
    " while A xor B loop null; end loop; for I in reverse 1 .. 2 loop null; end loop; loop exit; end loop;"
    " declare A : R; begin A := new R; B := new (H) R'(null); exception when A | B.C => null; when others => null; end;"
    " begin null; end; end Main;"
)

# each name denotes something
NAMED = """with Ada.Text_IO; with Ada.Finalization;
procedure Main is
   type T is new Ada.Finalization.Controlled with record Next : Integer := 0; end record;
   procedure Initialize (X : in out T);
   procedure Initialize (X : in out T) is begin Ada.Text_IO.Put_Line ("initialize"); end Initialize;
   function Twice (N : Integer) return Integer is begin return N * 2; end Twice;
   A, B : T;
begin
   for I in 1 .. 3 loop
      A.Next := Twice (I);
   end loop;
   declare
      A : Integer := B.Next;
   begin
      A := A + 1;
   exception
      when Constraint_Error => null;
   end;
end Main;
"""

# a text, and the code, line and column of its fault
TEXTS = [
    # numbers: UNEXPECTED where they are numbers, as a text begins with none
    ("1" * 18, 10, 1, 1),
    ("1" * 19, 2, 1, 1),
    ("1_" * 17 + "1", 10, 1, 1),
    ("1_" * 18 + "1", 2, 1, 1),
    ("1.5", 2, 1, 1),
    ("1..2", 10, 1, 1),
    ("12_", 2, 1, 1),
    ("1__2", 2, 1, 1),
    ("1a", 2, 1, 1),
    ("16#", 2, 1, 1),
    ("16#F#", 2, 1, 1),
    ("1234567890123456789", 2, 1, 1),
    # identifiers
    ("a", 10, 1, 1),
    ("a_1_B", 10, 1, 1),
    ("a__b", 4, 1, 1),
    ("a_", 4, 1, 1),
    ("abs_ ", 4, 1, 1),
    ("_a", 1, 1, 1),
    (ITEM + "a_;", 4, 1, 19),
    (ITEM + "a_\n", 4, 1, 19),
    (ITEM + "end_", 4, 1, 19),
    (ITEM + "ends", 10, 1, 23),
    (ITEM + "a\xe9", 1, 1, 20),
    (ITEM + "a, Z, a_1_B, abs_x, xabs, absx, elseif : Integer := 0 + 1_0; begin null; end Main;", ACCEPTED, 0, 0),
    (ITEM + "N : Integer := 123456789012345678; begin null; end Main;", 34, 1, 34),
    # the first fault of the form, of names, of types
    ("procedure Main is begin null; end Main", 10, 1, 39),
    ("procedure Main is A, B : Integer; begin A := B; end Main;", ACCEPTED, 0, 0),
    ("procedure Main is begin A := 1; end Main;", 20, 1, 25),
    ("procedure Main is B : Boolean := 1; begin X := 1; end Main;", 20, 1, 43),
    ("procedure Main is B : Boolean := 1; begin null; end Main;", 30, 1, 34),
    # strings
    ('"a', 3, 1, 1),
    ('"a""b"', 10, 1, 1),
    ('"a""b', 3, 1, 1),
    ('"a""', 3, 1, 1),
    ('"a\n"', 3, 1, 1),
    ('"a\r"', 3, 1, 1),
    ('with Ada.Text_IO; procedure Main is begin Ada.Text_IO.Put ("" & """" & " ~" & "--"); end Main;', ACCEPTED, 0, 0),
    # a string that is never closed comes before the byte in it that may not stand in a string
    ('"a\x01b', 3, 1, 1),
    ('"a\x01b"', 1, 1, 3),
    ('"""\x80"', 1, 1, 4),
    ('"\t"', 1, 1, 2),
    # bytes that begin nothing
    ("x [", 1, 1, 3),
    ("procedure \x85", 1, 1, 11),
    ("a\xe9", 1, 1, 2),
    # and come before a number that is none, behind them
    ("$ 1.5", 1, 1, 1),
    # bytes past ASCII may stand in comments alone, and end no line there
    ("-- \xe9\x85 1.5\n1.5", 2, 2, 1),
    ("--\r\n1", 10, 2, 1),
    # the length
    (" " * 1048576, 10, 1, 1048577),
    (" " * 1048577, 5, 1, 1),
    ("1.5" + " " * 1048576, 5, 1, 1),
    # a lexical fault comes before a fault of the grammar, wherever it stands
    ("end end end 1.5", 2, 1, 13),
    # grammar
    ("", 10, 1, 1),
    ("procedure Main is begin null; end Mein;", 13, 1, 35),
    ("procedure Main is begin null; end MAIN", 10, 1, 39),
    # a fault of the grammar comes before one of names, so each construct is one of the grammar's
    (EVERY_CONSTRUCT, 22, 1, 62),
    # a body is too deep where it begins, and a part of a heading where that stands; a heading alone is no construct
    (DEEP.format("procedure Q (X : T) is begin null; end;"), 11, 1, 621),
    (DEEP.format("procedure Q (X : T);"), 11, 1, 633),
    (DEEP.format("procedure Q (X T) is begin null; end;"), 11, 1, 633),
    (DEEP.format("procedure Q is begin null; end;"), 11, 1, 621),
    (DEEP.format("procedure Q is new D (1);"), 11, 1, 642),
    (DEEP.format("procedure Q is ;"), 10, 1, 636),
    (DEEP.format("overriding procedure Q is begin null; end;"), 11, 1, 632),
    (DEEP.format("function F return T is begin null; end;"), 11, 1, 621),
    (DEEP.format("procedure Q;"), 22, 1, 631),
    # the hundredth pair of parentheses is too deep, as the body of Main is open too; with one less the text is accepted
    (NESTED.format("(" * 100, ")" * 100), 11, 1, 142),
    (NESTED.format("(" * 99, ")" * 99), ACCEPTED, 0, 0),
    ("procedure Main is A, B, C : Boolean; begin A := A and B or C; end Main;", 10, 1, 57),
    ("procedure Main is A, B, C : Boolean; begin A := A or B and C; end Main;", 10, 1, 56),
    ("procedure Main is begin A := B and then C and D; end Main;", 10, 1, 47),
    ("procedure Main is begin A := B and then C and D; end;", 10, 1, 47),
    # two points behind a number are none of it
    ("procedure Main is begin for I in 1..2 loop null; end loop; end Main;", ACCEPTED, 0, 0),
    ("procedure Main is begin for I in 1..;", 10, 1, 37),
    ("procedure Main is begin for I in 1..2;", 10, 1, 38),
    ("procedure Main is begin null; end Main", 10, 1, 39),
    ("procedure Main is begin null end Main;", 10, 1, 30),
    ("procedure Main is begin null; end Main; null;", 10, 1, 41),
    ("procedure Main is begin A := B ' Size; end Main;", 12, 1, 34),
    (ITEM + "type A is access T'Class; begin null; end Main;", 12, 1, 38),
    (ITEM + "type A is access all T ' cLASS; begin null; end Main;", 12, 1, 44),
    (ITEM + "begin A := X'Class; end Main;", 12, 1, 32),
    (ITEM + "begin P (T'Class (X)); end Main;", 12, 1, 30),
    ("procedure Main is procedure P ( X : R ) is new Q ( 1 ); begin null; end;", 10, 1, 44),
    ("procedure Main is A : B ( C . D => 1 ); begin null; end;", 10, 1, 33),
    # texts that exchanges between programs made (exchanged.py), up to the fault
    ("procedure Formal_Gone is begin procedure", 10, 1, 32),
    ("end", 10, 1, 1),
    ("procedure Whole_Pair is begin begin null; end Adjust", 10, 1, 47),
    ("procedure Components is type Pair is record procedure", 10, 1, 45),
    ("begin", 10, 1, 1),
    ("procedure Before_Finalized is Put_Line (", 10, 1, 40),
    ("else", 10, 1, 1),
    ("for", 10, 1, 1),
    ("procedure Together is type T is new Controlled with record null; end Both", 10, 1, 70),
    ("type", 10, 1, 1),
    ("procedure Copied_Back is begin null; end record", 10, 1, 42),
    ("procedure Values is begin begin null; end Made", 10, 1, 43),
    ("procedure Freed is begin begin null; end Finalize", 10, 1, 42),
    ("procedure Access_Actual is type T is new Controlled with record B : aliased", 10, 1, 69),
    ("return", 10, 1, 1),
    ("procedure Recursive is for I in", 10, 1, 30),
    ("exception", 10, 1, 1),
    ("procedure Side_By_Side is Ask;", 10, 1, 30),
    ('procedure Unnumbered is type Pool is new Block_Pool with "F"', 10, 1, 58),
    ("0", 10, 1, 1),
    ("procedure Out_Access is begin Put_Line (Boolean'N", 12, 1, 49),
    ("procedure Copied is type Ref is access T with Controlled", 12, 1, 47),
    ("procedure Reverse_Order is begin Put_Line (\"A\" & Integer'N", 12, 1, 58),
    ("procedure Address_Inside is begin Put_Line (Boolean'Integer", 12, 1, 53),
    ("procedure Freed_List is begin Put_Line (\"node\" & Integer'Text_IO", 12, 1, 58),
    ("procedure Blocks is begin Put_Line (\"exhausted \" = Boolean'P", 12, 1, 60),
    ("procedure Largest_Block is begin Put_Line (\"A\" & Integer'X", 12, 1, 58),
    ("procedure Lives is begin Put_Line (\"guard\" & Integer'Finalize", 12, 1, 54),
    ("procedure Counted_Record is begin Put_Line (Integer'Text_IO", 12, 1, 53),
    ("procedure Conversions is begin Put_Line (Integer'Show", 12, 1, 50),
    ("procedure No_Turns is begin for I in Integer'I", 12, 1, 46),
    ("procedure Lives is begin Put_Line (Integer'P", 12, 1, 44),
    ("procedure Failed_Adjust is begin Put_Line (\"A\" & Integer'TURNS", 12, 1, 58),
    ("procedure Unary_Plus is begin Put_Line (Integer'N", 12, 1, 49),
    ("procedure Left_First is begin Put_Line (Image'Integer", 12, 1, 47),
    ("prOCeDUre Reserved_Words iS beGiN Put_Line (Integer'Reserved_Words", 12, 1, 53),
    ("procedure Main is begin Put_Line (\"F\" & Integer'Text_IO", 12, 1, 49),
    ("procedure Behind_The_Master is begin Put_Line (Integer'N", 12, 1, 56),
    ("procedure Failing is begin Put_Line (Integer'Image (X.A) & Integer'R", 12, 1, 68),
    ("procedure Shared_Count is begin Put_Line (\"shared by\" & Integer'Controlled_Record", 12, 1, 65),
    ("procedure Units is begin null; end Put_Line", 13, 1, 36),
    ("procedure Block_Pools is begin null; end Endless_Loop", 13, 1, 42),
    ("procedure Hello is begin null; end Ada", 13, 1, 36),
    ("procedure Extended is begin null; end C", 13, 1, 39),
    ("procedure Kept_Back is begin null; end Integer", 13, 1, 40),
    ("procedure Unopened is begin null; end Finalize", 13, 1, 39),
    ("procedure Closed_Allocate is begin null; end Text_IO", 13, 1, 46),
    ("procedure Nodes_Free_One_Another is begin null; end Finalize", 13, 1, 53),
    ("procedure Both_Fail is begin null; end Finalize", 13, 1, 40),
    ("procedure Main_Called_Again is begin null; end Ada", 13, 1, 48),
    ("procedure Zero_Divisor is begin null; end Integer", 13, 1, 43),
    ("procedure Copied is begin null; end Finalization", 13, 1, 37),
    ("procedure Nested_Return is begin null; end Finalize", 13, 1, 44),
    ("procedure Collection_Before_Object is begin null; end Finalize", 13, 1, 55),
    ("procedure Freed_Twice is begin null; end Find", 13, 1, 42),
    ("procedure Scopes is begin null; end Deep", 13, 1, 37),
    ("procedure One_Block_Too_Many is begin null; end Finalize", 13, 1, 49),
    ("procedure Rolled_Back is begin null; end Begun", 13, 1, 42),
    ("procedure Connections is begin null; end X", 13, 1, 42),
    ("procedure Freed_By_A_Later_Actual is begin null; end Freed", 13, 1, 54),
    # names
    (NAMED, ACCEPTED, 0, 0),
    ("procedure Main is begin A := 1; end Main;", 20, 1, 25),
    ("procedure Main is A, B, a : Integer; begin null; end Main;", 21, 1, 25),
    ("procedure Main is procedure P; begin null; end Main;", 22, 1, 29),
    ("procedure Main is begin Ada.Text_IO.New_Line; end Main;", 25, 1, 25),
    ("procedure Main is A : Integer := A; begin null; end Main;", 20, 1, 34),
    ("procedure Main is task T; begin null; end Main;", 12, 1, 19),
    # a broken rule on names comes before a construct that is left out, wherever they stand
    ("procedure Main is begin Put_Line (\"x\"); end Main;", 20, 1, 25),
    ("procedure Main is begin begin Put_Line (\"x\"); end; end Main;", 20, 1, 31),
    # a record is run where its components are: of Integer, Boolean, Storage_Count, Address or an access type, or of another such record
    (ITEM + "type R is record N : Integer; end record; type Q is record X : R; end record; Y : Q; begin Y.X.N := 1; end Main;", ACCEPTED, 1, 1),
    (ITEM + "type R is record N : Integer := 1; end record; type Q is record X : R; end record; Y : Q; begin null; end Main;", ACCEPTED, 1, 1),
    (ITEM + "type R is record N : Integer; end record; type Q is record X : R; end record; A, B : Q; begin A.X := B.X; end Main;", ACCEPTED, 1, 1),
    (CONTROLLED + "type R is new Controlled with null record; type Q is record X : R; end record; Y : Q; begin null; end Main;", ACCEPTED, 1, 1),
    (CONTROLLED + "type R is record N : Integer; end record; type T is new Controlled with record X : R; end record; Y : T; begin null; end Main;", ACCEPTED, 1, 1),
    (ITEM + "type R is record N : Integer; end record; type Q is record X : R; end record; A : Q; B : R := A.X; begin null; end Main;", ACCEPTED, 1, 1),
    # and copied and assigned, where a component has a controlled part, too
    (
        CONTROLLED
        + "type G is record N : Integer; end record; type C is new Controlled with null record; type Q is record X : C; end record;"
        + " A : G; B : G := A; Y : Q; Z : Q := Y; begin null; end Main;",
        ACCEPTED,
        1,
        1,
    ),
    (
        CONTROLLED
        + "type C is new Controlled with null record; type Q is record X : C; end record; Y, Z : Q; begin Y := Z; end Main;",
        ACCEPTED,
        1,
        1,
    ),
    # functions are run that give values of Integer, Boolean, Storage_Count, Address or an access type, and records that are not limited
    (ITEM + "function F return Integer is begin return 1; end F; N : Integer; begin N := F; end Main;", ACCEPTED, 1, 1),
    (ITEM + "function F (N : Integer) return Boolean is begin return N > 1; end F; begin while F (1) loop null; end loop; end Main;", ACCEPTED, 1, 1),
    (ITEM + "type R is record N : Integer; end record; function F (X : R) return Integer is begin return X.N; end F; begin null; end Main;", ACCEPTED, 1, 1),
    (ITEM + "type R is record N : Integer; end record; function F return R is V : R; begin return V; end F; begin null; end Main;", ACCEPTED, 1, 1),
    (ITEM + "type R is limited record N : Integer; end record; function F return R is V : R; begin return V; end F; begin null; end Main;", 32, 1, 87),
    (ITEM + "function F (N : out Integer) return Integer is begin return 1; end F; begin null; end Main;", 31, 1, 31),
    (ITEM + "function F return Integer is begin null; end F; begin null; end Main;", 35, 1, 28),
    (ITEM + "function F return Integer is begin return True; end F; begin null; end Main;", 30, 1, 61),
    (ITEM + "procedure P is begin return 1; end P; begin null; end Main;", 35, 1, 40),
    (ITEM + "type R is record N : Integer; B : Boolean := True; end record; X : R; begin X.N := 1; end Main;", ACCEPTED, 1, 1),
    (ITEM + "type R is limited record N : Integer; end record; X : R; begin X.N := 1; end Main;", ACCEPTED, 1, 1),
    (ITEM + "type R is record N : Integer; end record; X, Y : R; begin X := Y; end Main;", ACCEPTED, 1, 1),
    # a type that no object has does nothing when it is elaborated
    (ITEM + "type R is record N : Integer; end record; begin null; end Main;", ACCEPTED, 1, 1),
    (ITEM + "type R is record N : Integer; end record; begin X := 1; end Main;", 20, 1, 67),
    (ITEM + "type R is record N : Integer; end record; X : R; begin X := 1; end Main;", 30, 1, 79),
    (ITEM + "X, X : Integer; begin null; end Main;", 21, 1, 22),
    (ITEM + "procedure P; begin null; end Main;", 22, 1, 29),
    (ITEM + "procedure P is begin null; end P; type R is record N : Integer; end record; begin null; end Main;", 23, 1, 53),
    (ITEM + "begin Ada.Text_IO.New_Line; end Main;", 25, 1, 25),
    # and before a broken rule on types, wherever that stands
    ("procedure Main is begin X := 1; end Main", 10, 1, 41),
    ("procedure Main is B : Boolean := 1; begin X := 1; end Main;", 20, 1, 43),
    ("procedure Main is B : Boolean := 1; begin null; end Main;", 30, 1, 34),
    (MARK_POOLS + "P : Mark_Release_Pool (64); B : Boolean := 1; begin null; end Main;", 30, 1, 91),
    (ITEM + "N : Integer; begin N := True; M := 1; end Main;", 20, 1, 49),
    # an assignment of a record is run wherever its type is declared, and so is an object with the value of another one; a broken rule on
    # types is told
    (CONTROLLED + "type T is new Controlled with null record; X, Y : T; begin X := Y; end Main;", ACCEPTED, 1, 1),
    (CONTROLLED + "type T is new Controlled with null record; X : T; Y : T := X; begin X := Y; end Main;", ACCEPTED, 1, 1),
    (CONTROLLED + "begin declare type T is new Controlled with null record; X, Y : T; begin X := Y; end; end Main;", ACCEPTED, 1, 1),
    (CONTROLLED + "type T is new Limited_Controlled with null record; X, Y : T; begin X := Y; end Main;", 32, 1, 131),
    # procedures are run whose parameters are records, or of the types that functions give, in each mode; one with others is left out where it stands.
    # A copy goes back to a variable or to a component
    (ITEM + "procedure P is begin null; end P; begin P; end Main;", ACCEPTED, 1, 1),
    (ITEM + "procedure P (N : Integer) is begin null; end P; begin P (1); end Main;", ACCEPTED, 1, 1),
    (ITEM + "N : Integer; procedure P (M : in out Integer) is begin null; end P; begin P (N); end Main;", ACCEPTED, 1, 1),
    (ITEM + "B : Boolean; procedure P (M : out Boolean) is begin M := True; end P; begin P (B); end Main;", ACCEPTED, 1, 1),
    (ITEM + "type R is record N : Integer; end record; V : R; procedure P (M : out Integer) is begin M := 1; end P; begin P (V.N); end Main;", ACCEPTED, 1, 1),
    (ITEM + "procedure P (M : out Integer) is begin M := 1; end P; begin P (1); end Main;", 31, 1, 82),
    # access types are run, with allocators that have no value, that of a name or one that is no record's, access attributes, and instances of
    # Unchecked_Deallocation; a copy goes back to an object that is no record, too
    (ITEM + "type R is record N : Integer; end record; type P is access R; V : P; begin V := new R; V.N := 1; end Main;", ACCEPTED, 1, 1),
    (ITEM + "type R is record N : Integer; end record; type P is access all R; V : P := new R; begin V.all := V.all; end Main;", ACCEPTED, 1, 1),
    (ITEM + "type N; type L is access N; type N is record X : L := null; end record; V : L; begin V := new N; V.X := V; end Main;", ACCEPTED, 1, 1),
    (ITEM + "type R is record N : Integer; end record; type P is access R; X : R; V : P; begin V := new R'(X); end Main;", ACCEPTED, 1, 1),
    (ITEM + "type R is record N : Integer; end record; type P is access R; X : R; V : P := new R'(X); begin null; end Main;", ACCEPTED, 1, 1),
    (ITEM + "type R is record N : Integer; end record; type P is access R; V : P; function F (K : Integer) return P is begin return V; end F; begin V := new R'(F (1).all); end Main;", ACCEPTED, 1, 1),
    (ITEM + "type R is record N : Integer; end record; type P is access R; type Q is access all R; V : P; begin V := new R'(Q (V).all); end Main;", ACCEPTED, 1, 1),
    (ITEM + "type R is record N : Integer; end record; type P is access all R; X : aliased R; V : P; begin V := X'Access; end Main;", ACCEPTED, 1, 1),
    ("with Ada.Unchecked_Deallocation; " + ITEM + "type R is record N : Integer; end record; type P is access R; procedure Free is new Ada.Unchecked_Deallocation (R, P); V : P; begin Free (V); end Main;", ACCEPTED, 1, 1),
    (ITEM + "type R is record N : Integer; end record; type P is access R; type Q is access P; V : Q; begin V := new P'(null); end Main;", ACCEPTED, 1, 1),
    (ITEM + "type P is access Integer; V : P := new Integer; begin V.all := V.all + 1; V := new Integer'(V.all * 2); end Main;", ACCEPTED, 1, 1),
    (ITEM + "type P is access Boolean; type Q is access all P; V : Q := new P'(new Boolean'(True)); begin if V.all.all then V.all := null; end if; end Main;", ACCEPTED, 1, 1),
    ("with Ada.Unchecked_Deallocation; " + ITEM + "type P is access Integer; procedure Free is new Ada.Unchecked_Deallocation (Integer, P); V : P; begin Free (V); end Main;", ACCEPTED, 1, 1),
    (ITEM + "type P is access Integer; V : P; procedure Q (M : in Integer) is begin null; end Q; begin Q (V.all); end Main;", ACCEPTED, 1, 1),
    (ITEM + "type P is access Integer; V : P; procedure Q (M : out Integer) is begin M := 1; end Q; begin Q (V.all); end Main;", ACCEPTED, 1, 1),
    (ITEM + "type P is access Integer; V : P := new Integer'(True); begin null; end Main;", 30, 1, 67),
    # block pools are run, by themselves and extended
    (POOLS + "P : Block_Pool (16, 4); type R is record N : Integer; end record; type A is access R; for A'Storage_Pool use P; V : A; begin V := new R; V.N := 1; end Main;", ACCEPTED, 1, 1),
    (POOLS + "type R is record N : Integer; end record; P : Block_Pool (Block_Count => 4, Block_Size => 16); type A is access R with Storage_Pool => P; X : R; V : A := new R'(X); begin null; end Main;", ACCEPTED, 1, 1),
    (POOLS + "type K is new Block_Pool with record N : Integer := 1; end record; procedure Finalize (X : in out K); procedure Finalize (X : in out K) is begin X.N := 2; end Finalize; P : K (8, 1); begin P.N := P.N + 1; end Main;", ACCEPTED, 1, 1),
    (POOLS + "P : Block_Pool (4 + 4, 1); begin null; end Main;", ACCEPTED, 1, 1),
    (POOLS + "P : Block_Pool (16, 1); procedure Q (X : in out Block_Pool) is begin null; end Q; begin Q (P); end Main;", ACCEPTED, 1, 1),
    # pool types with an Allocate or a Deallocate of their own are run, and so are allocators that call it, with a value and without
    (ADDRESSES + f"type K is new Block_Pool with null record; {ALLOCATE}; {ALLOCATE} is begin null; end Allocate; P : K (16, 1); begin null; end Main;", ACCEPTED, 1, 1),
    (ADDRESSES + f"type K is new Block_Pool with null record; {DEALLOCATE}; {DEALLOCATE} is begin null; end Deallocate; P : K (16, 1); begin null; end Main;", ACCEPTED, 1, 1),
    (OWN_POOL + "begin declare P : K (16, 1); type M is access R with Storage_Pool => P; V : M; begin V := new R; V.N := 1; end; end Main;", ACCEPTED, 1, 1),
    (OWN_POOL + "begin declare P : K (16, 1); type M is access R with Storage_Pool => P; X : R; V : M; begin V := new R'(X); end; end Main;", ACCEPTED, 1, 1),
    (OWN_POOL + "X : R; V : L; begin V := new R'(X); end Main;", ACCEPTED, 1, 1),
    # calls of the library's Allocate and Deallocate are run, whether a variable or a component takes the address, and those of its Initialize,
    # Adjust and Finalize
    (ADDRESSES + "P : Block_Pool (16, 1); A : System.Address; begin Allocate (P, A, 8, 8); Deallocate (P, A, 8, 8); end Main;", ACCEPTED, 1, 1),
    (ADDRESSES + "type R is record A : System.Address; end record; X : R; P : Block_Pool (16, 1); begin Allocate (P, X.A, 8, 8); end Main;", ACCEPTED, 1, 1),
    (POOLS + "P : Block_Pool (16, 1); begin Finalize (P); end Main;", ACCEPTED, 1, 1),
    (CONTROLLED + "type T is new Controlled with null record; type L is access T; V : L; begin Initialize (V.all); Adjust (Controlled (V.all)); end Main;", ACCEPTED, 1, 1),
    # and variables, components, formals and results of the types Storage_Count and Address, and conversions of numbers
    (ADDRESSES + "N, M : Storage_Count := 8; A, B : System.Address; begin if N < M and A = B then N := M + 1; A := B; end if; end Main;", ACCEPTED, 1, 1),
    (ADDRESSES + "type R is record N : Storage_Count := 8; A : System.Address; end record; X : R; begin X.N := X.N * 2; X.A := System.Null_Address; end Main;", ACCEPTED, 1, 1),
    (ADDRESSES + "function F (N : Storage_Count) return Storage_Count is begin return N + 1; end F; N : Storage_Count; begin N := F (N); end Main;", ACCEPTED, 1, 1),
    (ADDRESSES + "N : Storage_Count := 8; P : Block_Pool (N, 1); begin null; end Main;", ACCEPTED, 1, 1),
    (ADDRESSES + "P : Block_Pool (Storage_Count (8), 1); begin null; end Main;", ACCEPTED, 1, 1),
    (ADDRESSES + "N : Storage_Count; I : Integer := 3; begin N := Storage_Count (I); I := Integer (N) + 1; end Main;", ACCEPTED, 1, 1),
    # discriminants of block pools are read, but not those of pools with marks
    (POOLS + "P, Q : Block_Pool (16, 4); begin if P.Block_Size = Q.Block_Size then null; end if; end Main;", ACCEPTED, 1, 1),
    (POOLS + "P : Block_Pool (16, 4); Q : Block_Pool (P.Block_Size, P.Block_Count); begin null; end Main;", ACCEPTED, 1, 1),
    (MARK_POOLS + "P : Mark_Release_Pool (64); begin if P.Pool_Size = 64 then null; end if; end Main;", 12, 1, 48),
    # pools with marks are left out, and in pools of blocks there are objects that are no records, too
    (MARK_POOLS + "P : Mark_Release_Pool (64); begin null; end Main;", 12, 1, 48),
    (MARK_POOLS + "type R is record N : Integer; end record; P : Mark_Release_Pool (64); type A is access R with Storage_Pool => P; V : A; begin V := new R; end Main;", 12, 1, 90),
    (POOLS + "P : Block_Pool (16, 1); type A is access Integer with Storage_Pool => P; V : A; begin V := new Integer; end Main;", ACCEPTED, 1, 1),
    # a rule on types comes before
    (POOLS + "P : Block_Pool (8, 2147483648); Q : Mark_Release_Pool (64); begin null; end Main;", 20, 1, 90),
    (MARK_POOLS + "Q : Mark_Release_Pool (64); P : Mark_Release_Pool (2147483648); begin null; end Main;", 34, 1, 99),
    # handlers are run
    (ITEM + "begin null; exception when others => raise; end Main;", ACCEPTED, 1, 1),
    # a type that extends another of the text inherits its components
    (CONTROLLED + "type T is new Controlled with record N : Integer := 1; end record; type U is new T with record B : Boolean; end record; X, Y : U; begin X.B := X.N = 1; Y := X; end Main;", ACCEPTED, 1, 1),
    (CONTROLLED + "type T is new Controlled with record N : Integer := 1; end record; type U is new T with record N : Boolean; end record; X : U; begin null; end Main;", 21, 1, 159),
    (CONTROLLED + "type T is new Controlled with null record; X : T; Y : T := X; begin null; end Main;", ACCEPTED, 1, 1),
    (CONTROLLED + "type T is new Controlled with null record; X, Y : T; begin X := Y; X := 1; end Main;", 30, 1, 136),
    # components of these types are run, in objects of controlled types, whatever their defaults are
    (
        CONTROLLED + "type T is new Controlled with record N : Integer; B : Boolean; end record; X : T; begin X.N := 1; X.B := X.N = 1; end Main;",
        ACCEPTED,
        1,
        1,
    ),
    (CONTROLLED + "type T is new Controlled with record N : Integer := 1; B : Boolean := True; end record; X : T; begin null; end Main;", ACCEPTED, 1, 1),
    (CONTROLLED + "type T is new Controlled with record N : Integer := 1 + 1; end record; begin null; end Main;", ACCEPTED, 1, 1),
    (CONTROLLED + "type T is new Controlled with record N : Integer := 1 + 1; end record; X : T; begin null; end Main;", ACCEPTED, 1, 1),
    (CONTROLLED + "K : Integer; type T is new Controlled with record N : Integer := K; end record; X : T; begin null; end Main;", ACCEPTED, 1, 1),
    # where a default is of a record type the type has no objects
    (CONTROLLED + "type P is record N : Integer; end record; Q : P; type T is record C : P := Q; end record; begin null; end Main;", ACCEPTED, 1, 1),
    (CONTROLLED + "type T is new Controlled with record N : Integer := True; end record; X : T; begin null; end Main;", 30, 1, 116),
    (
        CONTROLLED
        + "type T is new Controlled with record N : Integer; end record; type U is new T with record M : Integer; end record; X : U;"
        + " begin null; end Main;",
        ACCEPTED,
        1,
        1,
    ),
    (CONTROLLED + "type T is new Controlled with record N : Integer; end record; X, Y : T; begin X := Y; end Main;", ACCEPTED, 1, 1),
    (CONTROLLED + "type T is new Controlled with record N : Integer; end record; X : T; begin X.M := 1; end Main;", 30, 1, 139),
    (CONTROLLED + "type T is new Controlled with record N : Integer; end record; X : T; begin X.N := True; end Main;", 30, 1, 146),
    # of a type that only the text calls Integer
    (CONTROLLED + "type Integer is new Controlled with null record; X : Integer; Y : Integer := X; begin null; end Main;", ACCEPTED, 1, 1),
    # the null address is a value like others
    (
        "with System; use System; procedure Main is begin if Null_Address = Null_Address then null; end if; end Main;",
        ACCEPTED,
        1,
        1,
    ),
    # the five names of operations name no type, object or main procedure; formals and loop parameters may have them
    (CONTROLLED + "type Initialize is new Controlled with null record; begin null; end Main;", 33, 1, 69),
    (ITEM + "begin for Allocate in 1 .. 2 loop null; end loop; end Main;", ACCEPTED, 1, 1),
    (
        CONTROLLED
        + "type T is new Controlled with null record; procedure Finalize (Deallocate : in out T) is begin null;"
        + " end Finalize; X : T; begin null; end Main;",
        ACCEPTED,
        1,
        1,
    ),
    # types, variables, operations, literals and exits: the first broken rule, at its place
    # the innermost wrong expression, or the place of another type
    ('procedure Main is N : Integer; begin N := True; end Main;', 30, 1, 43),
    ('procedure Main is X : Boolean := 1; Y : Integer := 2147483648; begin null; end Main;', 30, 1, 34),
    ('procedure Main is N : Integer := 1 + True; begin null; end Main;', 30, 1, 38),
    ('procedure Main is N : Integer := (True) + 1; begin null; end Main;', 30, 1, 35),
    ('procedure Main is N : Integer := (1 + 2) * (3 - (True)); begin null; end Main;', 30, 1, 50),
    ('procedure Main is B : Boolean := not 1; begin null; end Main;', 30, 1, 38),
    ('procedure Main is B : Boolean := 1 < True; begin null; end Main;', 30, 1, 38),
    ('procedure Main is B : Boolean := True and 1 < 2 + True; begin null; end Main;', 30, 1, 51),
    ('procedure Main is B : Boolean := 1 + 2; begin null; end Main;', 30, 1, 34),
    ('procedure Main is N : Integer := -True; begin null; end Main;', 30, 1, 35),
    ('procedure Main is N : Integer := "a"; begin null; end Main;', 30, 1, 34),
    ('procedure Main is N : Integer; begin if N then null; end if; end Main;', 30, 1, 41),
    ('procedure Main is begin while 1 loop null; end loop; end Main;', 30, 1, 31),
    ('procedure Main is begin for I in 1 .. True loop null; end loop; end Main;', 30, 1, 39),
    ('procedure Main is begin loop exit when 1; end loop; end Main;', 30, 1, 40),
    # a literal
    ('procedure Main is N : Integer := 2147483648; begin null; end Main;', 34, 1, 34),
    ('procedure Main is B : Boolean := 1 < (2 + 2147483648); begin null; end Main;', 34, 1, 43),
    # what is no variable, before its value
    ('procedure Main is K : constant Integer := 1; begin K := True; end Main;', 31, 1, 52),
    ('procedure Main is begin for I in 1 .. 2 loop I := 1; end loop; end Main;', 31, 1, 46),
    ('procedure Main is N : Integer; begin Main := N; end Main;', 30, 1, 38),
    # declarations of objects
    ('procedure Main is N : Integer; K, L : constant Integer; begin null; end Main;', 30, 1, 32),
    ('procedure Main is A, Adjust : Integer := True; begin null; end Main;', 33, 1, 22),
    ('procedure Main is N : Integer; X : Main; begin null; end Main;', 30, 1, 32),
    # an exit in no loop, before its condition
    ('procedure Main is begin if True then exit when 1; end if; end Main;', 35, 1, 38),
    # strings, and calls that print them
    ('with Ada.Text_IO; use Ada.Text_IO; procedure Main is begin Put (1); end Main;', 30, 1, 65),
    ('with Ada.Text_IO; use Ada.Text_IO; procedure Main is begin Put (1 + True); end Main;', 30, 1, 69),
    ('with Ada.Text_IO; use Ada.Text_IO; procedure Main is begin Put_Line ("a" & 1 & "b"); end Main;', 30, 1, 76),
    ('with Ada.Text_IO; use Ada.Text_IO; procedure Main is begin Put_Line ("a" & ("b" & Integer\'Image (True))); end Main;', 30, 1, 98),
    ('with Ada.Text_IO; use Ada.Text_IO; procedure Main is begin Put ("a", "b"); end Main;', 30, 1, 60),
    ('with Ada.Text_IO; use Ada.Text_IO; procedure Main is begin null; New_Line (1); end Main;', 30, 1, 66),
    # operations, and the names that are theirs
    ('procedure Finalize is begin null; end Finalize;', 33, 1, 11),
    ('with Ada.Finalization; use Ada.Finalization; procedure Main is type Initialize is new Controlled with null record; begin null; end Main;', 33, 1, 69),
    ('with Ada.Finalization; use Ada.Finalization; procedure Main is type T is new Controlled with null record; procedure Finalize (X : T); procedure Finalize (X : T) is begin null; end Finalize; begin null; end Main;', 33, 1, 117),
    ('with Ada.Finalization; use Ada.Finalization; procedure Main is type T is new Controlled with null record; overriding procedure Finalize (X, Y : in out T); procedure Finalize (X, Y : in out T) is begin null; end Finalize; begin null; end Main;', 33, 1, 128),
]


def texts():
    yield from TEXTS
    # a reserved word that the subset leaves out is 12 where a word that it uses would be 10
    for word in UNUSED_WORDS:
        yield f"{ITEM}{word}", 12, 1, 19
        yield f"{ITEM}{word.lower()}", 12, 1, 19
        yield f"procedure Main is begin {word.upper()}", 12, 1, 25
    for delimiter in DELIMITERS:
        # each delimiter is a token, and none can begin an item
        yield f"{ITEM}{delimiter}", 10, 1, 19
        # it ends an identifier, a number and a word that stand directly before it; what goes on with a comma or a colon is
        # unexpected behind it
        yield f"{ITEM}a{delimiter}", 10, 1, 21 if delimiter in ",:" else 20
        # a point with no digit behind it is none of the number's
        yield f"{ITEM}1{delimiter}", 10, 1, 19
        yield f"{ITEM}begin{delimiter}", 10, 1, 24
    # bytes that begin nothing
    for byte in "!#%?@[\\]^`{}~\x7f\x00\x1f\x80\xff":
        yield byte, 1, 1, 1
        yield f"{ITEM}a{byte}", 1, 1, 20
    for before, line, column in LAST_PLACES:
        yield f"{before}1", 10, line, column
        yield f"{before}with", 10, line, column + len("with")
    for behind, line, column in ENDS:
        yield f"with{behind}", 10, line, column
    # a comment ends a name
    yield "with a--b\x0bc", 10, 2, 1
    for end in LINE_ENDS:
        yield f"{ITEM}{end};", 10, 2, 1
        yield f"{ITEM}a{end};", 10, 2, 1
        yield f"{ITEM}{end}{end} ;", 10, 3, 2
        # a comment ends with its line
        yield f"{ITEM}-- begin{end} ;", 10, 2, 2


def complaints(adactl):
    with tempfile.TemporaryDirectory() as folder:
        path = os.path.join(folder, "text.adb")
        for text, code, line, column in texts():
            with open(path, "wb") as file:
                file.write(text.encode("latin-1"))
            status, said = answer(adactl, path)
            wanted = (0, "") if code == ACCEPTED else (2, f"adactl: {fault_told(line, column, code)}")
            yield None if (status, said) == wanted else f"{text[:60]!r}: {status} {said!r}, not {wanted}"


if __name__ == "__main__":
    sys.exit(tell(complaints(sys.argv[1])))
