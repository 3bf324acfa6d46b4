--  The Adjust of an object that is created as a copy raises an exception: it is never finalized, and Program_Error is
--  raised where it is declared (RM 7.6.1).
with Ada.Finalization; use Ada.Finalization;
with Ada.Text_IO;      use Ada.Text_IO;

procedure Failed_Adjust is
   type T is new Controlled with record
      N : Integer := 0;
   end record;

   overriding procedure Adjust (X : in out T);
   overriding procedure Finalize (X : in out T);

   procedure Adjust (X : in out T) is
   begin
      Put_Line ("A" & Integer'Image (X.N));
   end Adjust;

   procedure Finalize (X : in out T) is
   begin
      Put_Line ("F" & Integer'Image (X.N));
   end Finalize;
begin
   declare
      type R is new T with null record;

      overriding procedure Adjust (X : in out R);

      procedure Adjust (X : in out R) is
      begin
         raise Constraint_Error;
      end Adjust;

      A : R;
   begin
      declare
         B : R := A;
      begin
         Put_Line ("no");
      end;
   exception
      when Program_Error =>
         Put_Line ("PE");
   end;
end Failed_Adjust;
