--  A component of an object that was freed is assigned to: that is erroneous, and stops the run (RM 13.11.2).
with Ada.Finalization; use Ada.Finalization;
with Ada.Text_IO;      use Ada.Text_IO;
with Ada.Unchecked_Deallocation;

procedure Written is
   type T is new Controlled with record
      N : Integer := 0;
   end record;

   overriding procedure Finalize (X : in out T);

   procedure Finalize (X : in out T) is
   begin
      Put_Line ("F" & Integer'Image (X.N));
   end Finalize;
begin
   declare
      type Ref is access T;

      procedure Free is new Ada.Unchecked_Deallocation (T, Ref);

      A, B : Ref;
   begin
      A := new T;
      B := A;
      Free (A);
      B.N := 1;
   end;
end Written;
