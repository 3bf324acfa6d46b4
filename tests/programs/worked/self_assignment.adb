--  An assignment finalizes its target, copies the value and adjusts the target; an object that is assigned to itself
--  stays as it is (RM 5.2, 7.6).
with Ada.Finalization; use Ada.Finalization;
with Ada.Text_IO;      use Ada.Text_IO;

procedure Self_Assignment is
   type T is new Controlled with record
      N : Integer := 0;
   end record;

   overriding procedure Adjust (X : in out T);
   overriding procedure Finalize (X : in out T);

   procedure Adjust (X : in out T) is
   begin
      Put_Line ("A" & Integer'Image (X.N));
   end Adjust;

   procedure Finalize (X : in out T) is
   begin
      Put_Line ("F" & Integer'Image (X.N));
   end Finalize;
begin
   declare
      A, B : T;
   begin
      A.N := 1;
      B.N := 2;
      A := A;
      A := B;
   end;
end Self_Assignment;
