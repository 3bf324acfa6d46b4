--  An access value may designate an access value, and that one a number or a record (RM 3.10, 4.1).
with Ada.Text_IO; use Ada.Text_IO;

procedure Chained is
   type Number is access Integer;
   type Outer is access Number;

   type R is record
      N : Integer := 1;
   end record;

   type Inner_Record is access R;
   type Outer_Record is access Inner_Record;

   Y : Outer        := new Number'(new Integer'(7));
   Z : Outer_Record := new Inner_Record'(new R);
   V : R;
begin
   Put_Line (Integer'Image (Y.all.all));
   Y.all.all := 8;
   Put_Line (Integer'Image (Y.all.all));
   V.N := 4;
   Z.all.all := V;
   Z.all.N := Z.all.N + 1;
   Put_Line (Integer'Image (Z.all.all.N));
   Y.all := null;
   begin
      Y.all.all := 9;
   exception
      when Constraint_Error =>
         Put_Line ("null");
   end;
end Chained;
