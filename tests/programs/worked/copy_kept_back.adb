--  A copy of an actual does not go back where the body is left by an exception (RM 6.4.1).
with Ada.Finalization; use Ada.Finalization;
with Ada.Text_IO;      use Ada.Text_IO;

procedure Copy_Kept_Back is
   type T is new Controlled with record
      N : Integer := 0;
   end record;

   overriding procedure Adjust (X : in out T);
   overriding procedure Finalize (X : in out T);

   procedure Adjust (X : in out T) is
   begin
      Put_Line ("A" & Integer'Image (X.N));
   end Adjust;

   procedure Finalize (X : in out T) is
   begin
      Put_Line ("F" & Integer'Image (X.N));
   end Finalize;
begin
   declare
      N : Integer := 1;

      procedure P (X : in out Integer) is
      begin
         X := 9;
         raise Constraint_Error;
      end P;
   begin
      P (N);
   exception
      when Constraint_Error =>
         Put_Line ("N" & Integer'Image (N));
   end;
end Copy_Kept_Back;
