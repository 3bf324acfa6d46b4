--  The members of a collection are finalized with the block of their access type, in a chosen order (RM 7.6.1).
with Ada.Finalization; use Ada.Finalization;
with Ada.Text_IO;      use Ada.Text_IO;

procedure Members is
   type T is new Controlled with record
      N : Integer := 0;
   end record;

   overriding procedure Finalize (X : in out T);

   procedure Finalize (X : in out T) is
   begin
      Put_Line ("F" & Integer'Image (X.N));
   end Finalize;
begin
   declare
      type Ref is access T;

      A : Ref;
   begin
      for I in 1 .. 3 loop
         A := new T;
         A.N := I;
      end loop;
      A := null;
   end;
   Put_Line ("end");
end Members;
