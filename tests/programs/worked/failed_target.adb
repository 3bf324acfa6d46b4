--  A Finalize of the target of an assignment raises an exception: Program_Error is raised there, the target keeps its
--  value, and is finalized with its master. The types of the block are those of its objects (RM 7.6.1).
with Ada.Finalization; use Ada.Finalization;
with Ada.Text_IO;      use Ada.Text_IO;

procedure Failed_Target is
   type T is new Controlled with record
      N : Integer := 0;
   end record;

   overriding procedure Adjust (X : in out T);
   overriding procedure Finalize (X : in out T);

   procedure Adjust (X : in out T) is
   begin
      Put_Line ("A" & Integer'Image (X.N));
   end Adjust;

   procedure Finalize (X : in out T) is
   begin
      Put_Line ("F" & Integer'Image (X.N));
   end Finalize;
begin
   declare
      type R is new T with null record;

      overriding procedure Finalize (X : in out R);

      procedure Finalize (X : in out R) is
      begin
         Put_Line ("R" & Integer'Image (X.N));
         if X.N = 1 then
            raise Constraint_Error;
         end if;
      end Finalize;

      A, B : R;
   begin
      A.N := 1;
      B.N := 2;
      A := B;
   exception
      when Program_Error =>
         Put_Line ("PE");
         A.N := 3;
   end;
end Failed_Target;
