--  An object is freed by an instance for a type of another collection: that is erroneous, and stops the run
--  (RM 13.11.2).
with Ada.Finalization; use Ada.Finalization;
with Ada.Text_IO;      use Ada.Text_IO;
with Ada.Unchecked_Deallocation;

procedure Other_Collection is
   type T is new Controlled with record
      N : Integer := 0;
   end record;

   overriding procedure Finalize (X : in out T);

   procedure Finalize (X : in out T) is
   begin
      Put_Line ("F" & Integer'Image (X.N));
   end Finalize;
begin
   declare
      type Ref is access T;
      type G is access all T;

      procedure Free is new Ada.Unchecked_Deallocation (T, G);

      A : Ref;
      V : G;
   begin
      A := new T;
      V := G (A);
      Free (V);
   end;
end Other_Collection;
