--  Handles that share a number: how many they are stands in an Integer of its own, which the last of them frees (RM 7.6, 13.11.2).
with Ada.Finalization; use Ada.Finalization;
with Ada.Text_IO;      use Ada.Text_IO;
with Ada.Unchecked_Deallocation;

procedure Shared_Count is
   type Count is access Integer;

   procedure Free is new Ada.Unchecked_Deallocation (Integer, Count);

   type Handle is new Controlled with record
      Sharers : Count;
   end record;

   overriding procedure Initialize (X : in out Handle);
   overriding procedure Adjust (X : in out Handle);
   overriding procedure Finalize (X : in out Handle);

   procedure Initialize (X : in out Handle) is
   begin
      X.Sharers := new Integer'(1);
   end Initialize;

   procedure Adjust (X : in out Handle) is
   begin
      X.Sharers.all := X.Sharers.all + 1;
   end Adjust;

   procedure Finalize (X : in out Handle) is
   begin
      X.Sharers.all := X.Sharers.all - 1;
      Put_Line ("left" & Integer'Image (X.Sharers.all));
      if X.Sharers.all = 0 then
         Free (X.Sharers);
      end if;
   end Finalize;
begin
   declare
      A : Handle;
      B : Handle := A;
   begin
      declare
         C : Handle := B;
      begin
         Put_Line ("shared by" & Integer'Image (C.Sharers.all));
      end;
      A := B;
   end;
end Shared_Count;
