--  Each reserved word of the subset, in letters of either case, and each delimiter (RM 2.2, 2.9).
wIth Ada.Finalization; UsE Ada.Finalization;
wIth Ada.Text_IO; UsE Ada.Text_IO;

prOCeDUre Reserved_Words iS
   typE N;
   typE L iS AccesS All N;
   typE N iS limiTed REcoRd
      A : Integer := 9 rEM 5 + (-9) mod 5;
      B : Boolean := noT True ANd Then False;
      C : Boolean := (False or Else True) XOr False;
   end REcoRd;
   typE T iS tagGEd;
   typE T iS neW Controlled wIth null REcoRd;
   oVerRIDiNG prOCeDUre Finalize (X : in out T);
   oVerRIDiNG prOCeDUre Finalize (X : in out T) iS
   beGiN
      Put_Line ("finalized");
   end Finalize;
   E : exCEptIon;
   V : AliaSed N;
   P, Q : L := V'AccesS;
   K : ConSTAnT Integer := Abs (2 * 3 / 1 - 7);
   fUNctioN F (M : Integer) ReTurn Integer iS
   beGiN
      ReTurn M + 1;
   end F;
beGiN
   for I in ReveRse 1 .. 2 Loop
      Put_Line (Integer'Image (I) & Integer'Image (F (I)));
   end Loop;
   while P.All.A > K and P.A >= K Loop
      P.A := P.A - 4;
      exit wheN P.A < K or P.A <= 2;
   end Loop;
   if P.A < K then
      null;
   elsif P.A /= K then
      null;
   Else
      Put_Line ("else");
   end if;
   DeclAre
      X : T;
   beGiN
      raIse E;
   exCEptIon
      wheN Constraint_Error | E =>
         Put_Line ("raised");
      wheN otHERs =>
         null;
   end;
end Reserved_Words;
