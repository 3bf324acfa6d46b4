--  The Adjust of an allocated object fails: Program_Error, nothing is assigned, and the object is gone (RM 4.8,
--  7.6.1).
with Ada.Finalization; use Ada.Finalization;
with Ada.Text_IO;      use Ada.Text_IO;

procedure Unadjusted is
   type T is new Controlled with record
      N : Integer := 0;
   end record;

   overriding procedure Adjust (X : in out T);
   overriding procedure Finalize (X : in out T);

   procedure Adjust (X : in out T) is
   begin
      raise Constraint_Error;
   end Adjust;

   procedure Finalize (X : in out T) is
   begin
      Put_Line ("F" & Integer'Image (X.N));
   end Finalize;
begin
   declare
      type Ref is access T;

      C : T;
      A : Ref;
   begin
      C.N := 2;
      A := new T'(C);
      Put_Line ("made");
   exception
      when Program_Error =>
         Put_Line (Boolean'Image (A = null));
   end;
end Unadjusted;
