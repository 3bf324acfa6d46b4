--  The target of an assignment is finalized, takes the value and is adjusted. Where its Adjust raises, the assignment ends
--  in Program_Error; the target has the new value then, and is finalized with its block (RM 5.2, 7.6, 7.6.1).
with Ada.Finalization; use Ada.Finalization;
with Ada.Text_IO;      use Ada.Text_IO;

procedure Failing_Adjust is
   type T is new Controlled with record
      N : Integer := 0;
   end record;

   overriding procedure Adjust (X : in out T);
   overriding procedure Finalize (X : in out T);

   procedure Adjust (X : in out T) is
   begin
      X.N := X.N + 10;
      Put_Line ("a" & Integer'Image (X.N));
      raise Constraint_Error;
   end Adjust;

   procedure Finalize (X : in out T) is
   begin
      Put_Line ("f" & Integer'Image (X.N));
   end Finalize;
begin
   declare
      V, W : T;
   begin
      V.N := 1;
      W.N := 2;
      V := W;
      Put_Line ("no");
   end;
end Failing_Adjust;
