--  A Finalize of the body raises: Program_Error takes the place of the record, and the next call is right (RM 7.6.1).
with Ada.Finalization; use Ada.Finalization;
with Ada.Text_IO;      use Ada.Text_IO;

procedure Failing is
   type R is record
      A : Integer;
      B : Integer;
   end record;

   type Guard is new Limited_Controlled with null record;

   overriding procedure Finalize (X : in out Guard);

   Fails : Boolean := True;

   procedure Finalize (X : in out Guard) is
   begin
      if Fails then
         raise Constraint_Error;
      end if;
   end Finalize;

   function F (N : Integer) return R is
      G : Guard;
      V : R;
   begin
      V.A := N;
      V.B := N;
      return V;
   end F;

   X : R;
begin
   X.A := 1;
   X.B := 2;
   begin
      X := F (3);
   exception
      when Program_Error =>
         Put_Line ("failed");
   end;
   Put_Line (Integer'Image (X.A) & Integer'Image (X.B));
   Fails := False;
   X := F (4);
   Put_Line (Integer'Image (X.A) & Integer'Image (X.B));
end Failing;
