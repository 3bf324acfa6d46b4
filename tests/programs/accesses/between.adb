--  A collection is a layer of its master, at the freezing place of its type: an object that is declared behind the
--  access type is finalized before the collection, and one before it after (RM 7.6.1, 13.14).
with Ada.Finalization; use Ada.Finalization;
with Ada.Text_IO;      use Ada.Text_IO;

procedure Between is
   type T is new Controlled with record
      N : Integer := 0;
   end record;

   overriding procedure Finalize (X : in out T);

   procedure Finalize (X : in out T) is
   begin
      Put_Line ("F" & Integer'Image (X.N));
   end Finalize;
begin
   declare
      U : T;

      type Ref is access T;

      A : Ref;
      V : T;
   begin
      U.N := 1;
      A := new T;
      A.N := 2;
      V.N := 3;
   end;
end Between;
