--  Procedures without parameters that hold a lock while they work (RM 6.4, 7.6.1): each takes it anew, and gives it back when it is left,
--  by its end, by a return statement or by an exception.
with Ada.Finalization; use Ada.Finalization;
with Ada.Text_IO;      use Ada.Text_IO;

procedure Scoped_Steps is
   Held  : Integer := 0;
   Steps : Integer := 0;

   type Lock is new Limited_Controlled with null record;

   overriding procedure Initialize (X : in out Lock);
   overriding procedure Finalize (X : in out Lock);

   procedure Initialize (X : in out Lock) is
   begin
      Held := Held + 1;
      Put_Line ("take, held" & Integer'Image (Held));
   end Initialize;

   procedure Finalize (X : in out Lock) is
   begin
      Held := Held - 1;
      Put_Line ("give back, held" & Integer'Image (Held));
   end Finalize;

   procedure Step is
      Guard : Lock;
   begin
      Steps := Steps + 1;
      if Steps = 1 then
         Put_Line ("a step inside a step");
         Step;
         return;
      end if;
      Put_Line ("step" & Integer'Image (Steps));
   end Step;

   procedure Fail is
      Guard : Lock;
   begin
      Steps := Steps / (Steps - 2);
   end Fail;
begin
   Step;
   Fail;
   Put_Line ("never reached");
end Scoped_Steps;
