--  Defaults that designate an object, read its components, divide by what is zero, and evaluate the second operand only
--  where it is wanted (RM 3.8, 3.10.2, 4.1.3, 4.5.1, 4.5.5).
with Ada.Text_IO; use Ada.Text_IO;

procedure Reading is
   type P is record
      X : Integer := 3;
      Y : Integer := 4;
   end record;

   type Ref is access all P;

   V : aliased P;

   type R is record
      A : Ref := V'Access;
      B : Integer := V.Y;
      C : Integer := Integer'First / (V.X - 3);
      D : Boolean := V.X > 2 and then V.Y > 3;
   end record;
begin
   begin
      declare
         Z : R;
      begin
         Put_Line (Integer'Image (Z.A.X));
      end;
   exception
      when Constraint_Error =>
         Put_Line ("zero");
   end;
   V.X := 5;
   declare
      Z : R;

      procedure Inner is
         W : R;
      begin
         V.Y := V.Y + 1;
         Put_Line (Integer'Image (Z.A.X) & Integer'Image (W.B) & Integer'Image (Z.A.Y) & Boolean'Image (Z.A = W.A));
      end Inner;
   begin
      Inner;
      Inner;
   end;
end Reading;
