--  The record that a function gives is no object: it takes no number, and nothing of it is finalized; an object of the body
--  is, before the call has its value (RM 6.5, 7.6.1).
with Ada.Finalization; use Ada.Finalization;
with Ada.Text_IO;      use Ada.Text_IO;

procedure Numbers is
   type R is record
      A : Integer;
   end record;

   type Guard is new Limited_Controlled with null record;

   overriding procedure Finalize (X : in out Guard);

   procedure Finalize (X : in out Guard) is
   begin
      null;
   end Finalize;

   function F return R is
      G : Guard;
      V : R;
   begin
      V.A := 7;
      return V;
   end F;
begin
   declare
      X : R := F;
      H : Guard;
   begin
      Put_Line (Integer'Image (X.A));
   end;
end Numbers;
