--  The instance of Unchecked_Deallocation freezes the access type before the object is declared: the collection is
--  finalized after the object (RM 7.6.1, 13.14).
with Ada.Finalization; use Ada.Finalization;
with Ada.Text_IO;      use Ada.Text_IO;
with Ada.Unchecked_Deallocation;

procedure Object_Before_Collection is
   type T is new Controlled with record
      N : Integer := 0;
   end record;

   overriding procedure Adjust (X : in out T);
   overriding procedure Finalize (X : in out T);

   procedure Adjust (X : in out T) is
   begin
      Put_Line ("A" & Integer'Image (X.N));
   end Adjust;

   procedure Finalize (X : in out T) is
   begin
      Put_Line ("F" & Integer'Image (X.N));
   end Finalize;
begin
   declare
      type Ref is access T;

      procedure Free is new Ada.Unchecked_Deallocation (T, Ref);

      C    : T;
      R, S : Ref;
   begin
      C.N := 9;
      R := new T;
      R.N := 1;
      S := new T;
      S.N := 2;
      Free (R);
      if R = null then
         Put_Line ("null");
      end if;
   end;
end Object_Before_Collection;
