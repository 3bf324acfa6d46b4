--  An object is freed: the variable becomes null, and null is freed by doing nothing (RM 13.11.2).
with Ada.Finalization; use Ada.Finalization;
with Ada.Text_IO;      use Ada.Text_IO;
with Ada.Unchecked_Deallocation;

procedure Freed is
   type T is new Controlled with record
      N : Integer := 0;
   end record;

   overriding procedure Finalize (X : in out T);

   procedure Finalize (X : in out T) is
   begin
      Put_Line ("F" & Integer'Image (X.N));
   end Finalize;
begin
   declare
      type Ref is access T;

      procedure Free is new Ada.Unchecked_Deallocation (T, Ref);

      R : Ref;
   begin
      R := new T;
      R.N := 1;
      Free (R);
      Put_Line (Boolean'Image (R = null));
      Free (R);
   end;
end Freed;
