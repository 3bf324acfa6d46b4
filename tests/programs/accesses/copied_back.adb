--  Copies of access values go back as those of numbers do; an `out` copy of an access type begins with the value of
--  the actual (RM 6.4.1).
with Ada.Text_IO; use Ada.Text_IO;

procedure Copied_Back is
   type R is record
      N : Integer := 3;
   end record;

   type P is access R;

   A : P;

   procedure Make (X : in out P; Y : out P) is
   begin
      Put_Line (Boolean'Image (Y = null) & Boolean'Image (X = Y));
      X := new R;
      X.N := 5;
      Y := null;
   end Make;

   B : P;
begin
   A := new R;
   B := A;
   Make (A, B);
   Put_Line (Integer'Image (A.N) & Boolean'Image (B = null));
end Copied_Back;
