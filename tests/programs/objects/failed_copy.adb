--  An object begins with the value of another one, and its Adjust raises: Program_Error, and the object never was, so it
--  is not finalized (RM 7.6, 7.6.1).
with Ada.Finalization; use Ada.Finalization;
with Ada.Text_IO;      use Ada.Text_IO;

procedure Failed_Copy is
   type T is new Controlled with record
      N : Integer := 4;
   end record;

   overriding procedure Adjust (X : in out T);
   overriding procedure Finalize (X : in out T);

   procedure Adjust (X : in out T) is
   begin
      Put_Line ("a" & Integer'Image (X.N));
      raise Constraint_Error;
   end Adjust;

   procedure Finalize (X : in out T) is
   begin
      Put_Line ("f" & Integer'Image (X.N));
   end Finalize;
begin
   declare
      V : T;
      W : T := V;
   begin
      Put_Line ("no");
   end;
end Failed_Copy;
