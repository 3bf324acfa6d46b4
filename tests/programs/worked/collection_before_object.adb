--  A collection that is made after an object was declared is finalized before the object is; an object of it that was
--  freed is finalized no more, and its variable is null (RM 7.6.1, 13.11.2, 13.14).
with Ada.Finalization; use Ada.Finalization;
with Ada.Text_IO;      use Ada.Text_IO;
with Ada.Unchecked_Deallocation;

procedure Collection_Before_Object is
   type T is new Controlled with record
      N : Integer := 0;
   end record;

   overriding procedure Adjust (X : in out T);
   overriding procedure Finalize (X : in out T);

   procedure Adjust (X : in out T) is
   begin
      Put_Line ("A" & Integer'Image (X.N));
   end Adjust;

   procedure Finalize (X : in out T) is
   begin
      Put_Line ("F" & Integer'Image (X.N));
   end Finalize;
begin
   declare
      type Ref is access T;

      C : T;

      procedure Free is new Ada.Unchecked_Deallocation (T, Ref);

      R, S : Ref;
   begin
      C.N := 9;
      R := new T;
      R.N := 1;
      S := new T;
      S.N := 2;
      Free (R);
      if R = null then
         Put_Line ("null");
      end if;
   end;
end Collection_Before_Object;
