--  A member whose Finalize raises in the end of its collection makes Program_Error, and the others are finalized all
--  the same (RM 7.6.1).
with Ada.Finalization; use Ada.Finalization;
with Ada.Text_IO;      use Ada.Text_IO;

procedure Failing_Member is
   type T is new Controlled with record
      N : Integer := 0;
   end record;

   overriding procedure Finalize (X : in out T);

   procedure Finalize (X : in out T) is
   begin
      Put_Line ("F" & Integer'Image (X.N));
      if X.N = 2 then
         raise Constraint_Error;
      end if;
   end Finalize;
begin
   declare
      type Ref is access T;

      A : Ref;
   begin
      for I in 1 .. 3 loop
         A := new T;
         A.N := I;
      end loop;
   end;
exception
   when Program_Error =>
      Put_Line ("failed");
end Failing_Member;
