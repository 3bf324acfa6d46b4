--  Two access values may designate one object. They are compared by the objects that they designate (RM 4.5.2).
with Ada.Text_IO; use Ada.Text_IO;

procedure Shared is
   type R is record
      N : Integer := 3;
   end record;

   type P is access R;

   A, B : P;
begin
   A := new R;
   B := A;
   B.N := B.N + 4;
   Put_Line (Integer'Image (A.N) & Boolean'Image (A = B));
   B := new R;
   Put_Line (Integer'Image (B.N) & Boolean'Image (A = B) & Boolean'Image (B /= null));
end Shared;
