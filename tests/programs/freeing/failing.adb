--  A Finalize fails where its object is freed: Program_Error, the variable is null, and the object is gone all the
--  same, so its use stops the run (RM 7.6.1, 13.11.2).
with Ada.Finalization; use Ada.Finalization;
with Ada.Text_IO;      use Ada.Text_IO;
with Ada.Unchecked_Deallocation;

procedure Failing is
   type T is new Controlled with record
      N : Integer := 0;
   end record;

   overriding procedure Finalize (X : in out T);

   procedure Finalize (X : in out T) is
   begin
      raise Constraint_Error;
   end Finalize;
begin
   declare
      type Ref is access T;

      procedure Free is new Ada.Unchecked_Deallocation (T, Ref);

      A, B : Ref;
   begin
      A := new T;
      B := A;
      begin
         Free (A);
      exception
         when Program_Error =>
            Put_Line (Boolean'Image (A = null));
      end;
      B.N := 1;
   end;
end Failing;
