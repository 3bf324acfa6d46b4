--  A declared object is designated, and freed: it is in no collection, which is erroneous, and stops the run
--  (RM 13.11.2).
with Ada.Finalization; use Ada.Finalization;
with Ada.Text_IO;      use Ada.Text_IO;
with Ada.Unchecked_Deallocation;

procedure Declared is
   type T is new Controlled with record
      N : Integer := 0;
   end record;

   overriding procedure Finalize (X : in out T);

   procedure Finalize (X : in out T) is
   begin
      Put_Line ("F" & Integer'Image (X.N));
   end Finalize;
begin
   declare
      type Ref is access all T;

      procedure Free is new Ada.Unchecked_Deallocation (T, Ref);

      X : aliased T;
      V : Ref;
   begin
      V := X'Access;
      V.N := 5;
      Put_Line (Integer'Image (X.N));
      Free (V);
   end;
end Declared;
