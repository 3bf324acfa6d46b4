--  Defaults that are no constants are evaluated anew for each object, in the order in which its components are chosen
--  (RM 3.8, 7.6).
with Ada.Text_IO; use Ada.Text_IO;

procedure Values is
   Counter : Integer := 10;

   function Next return Integer;

   type R is record
      N : Integer := Next;
      M : Integer := 2 * Counter + 1;
      B : Boolean := Counter > 11;
   end record;

   type Low is record
      N : Integer := -1;
   end record;

   function Next return Integer is
   begin
      Counter := Counter + 1;
      Put_Line ("next" & Integer'Image (Counter));
      return Counter;
   end Next;

   procedure Show (X : in R) is
   begin
      Put_Line (Integer'Image (X.N) & Integer'Image (X.M) & Boolean'Image (X.B));
   end Show;

   X : R;
   L : Low;
begin
   Show (X);
   declare
      Y : R;
      Z : R := X;
   begin
      Show (Y);
      Show (Z);
   end;
   Put_Line (Integer'Image (L.N));
end Values;
